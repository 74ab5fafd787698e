pub struct Unit;

#[cfg(test)]
mod outline;

fn f() {
    g();
}
