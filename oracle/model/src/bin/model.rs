fn main() -> std::io::Result<()> {
    cases::serve(model::answer)
}
