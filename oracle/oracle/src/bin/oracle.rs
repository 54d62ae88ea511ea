fn main() -> std::io::Result<()> {
    oracle::silence_panics();
    cases::serve(oracle::answer)
}
