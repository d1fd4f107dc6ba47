fn main() {
    let modules = source::for_build_script();
    source::declare(
        modules
            .iter()
            .map(|module| (module.name, module.path.as_path())),
    );
}
