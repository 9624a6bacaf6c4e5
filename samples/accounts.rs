/// An account, and whose it is.
struct Account {
    id: u64,
    owner: Option<String>,
    key: [u8; 4],
}
