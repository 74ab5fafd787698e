-- What Neovim shows of a file by `itemtree lsp`: $ITEMTREE is the program. Each line that is written is an answer or what is shown.
vim.fn.writefile({ "struct Circle {", "    radius: f64,", "}", "fn area() {", "}" }, "shapes.rs")
vim.cmd("edit shapes.rs")
local client = vim.lsp.start_client({ name = "itemtree", cmd = { vim.env.ITEMTREE, "lsp" }, root_dir = vim.fn.getcwd() })
vim.lsp.buf_attach_client(0, client)

local function names()
  local document = { textDocument = vim.lsp.util.make_text_document_params() }
  local answers = vim.lsp.buf_request_sync(0, "textDocument/documentSymbol", document, 5000)
  return table.concat(vim.tbl_map(function(it) return it.name end, answers[client].result), " ")
end

local function problems()
  local told = vim.tbl_map(function(it) return it.lnum + 1 .. ": " .. it.message end, vim.diagnostic.get(0))
  return table.concat(told, "; ")
end

local function say(what, text)
  io.stdout:write(what .. ": " .. text .. "\n")
end

vim.wait(5000, function() return vim.lsp.buf_get_clients(0)[client] end)
say("outline", names())
vim.cmd("normal Goconst A: u8 = 1;\27")
say("typed", names())
vim.cmd("normal ofn (\27")
vim.wait(5000, function() return problems() ~= "" end)
say("problems", problems())
vim.cmd("normal dd")
vim.wait(5000, function() return problems() == "" end)
say("mended", problems())
vim.cmd("qa!")
