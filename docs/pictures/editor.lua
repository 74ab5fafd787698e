-- Opens typed.rs by `itemtree lsp`, and lists its symbols when its problems are shown.
vim.o.number = true
vim.cmd("edit typed.rs")
local client = vim.lsp.start_client({ name = "itemtree", cmd = { vim.env.ITEMTREE, "lsp" }, root_dir = vim.fn.getcwd() })
vim.lsp.buf_attach_client(0, client)
vim.wait(5000, function() return #vim.diagnostic.get(0) > 0 end)
vim.lsp.buf.document_symbol()
vim.wait(5000, function() return #vim.fn.getqflist() > 0 end)
vim.cmd("resize 6")
vim.fn.writefile({}, "shown")
