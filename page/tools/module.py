"""Makes the page's WebAssembly module: page/engine/build compiles the engine, with a compiler that it downloads where it is missing."""
import kit


def build(top, work):
    """The module's bytes. `work` is an empty folder."""
    made = f"{work}/engine.wasm"
    kit.run(f"{top}/page/engine/build", made)
    with open(made, "rb") as file:
        return file.read()
