"""libyaml's emitter, by the driver of its own tests."""
from real_bug import Bug, Program

EMITTER = Program(
    name="yaml_emitter", package="libyaml", version="0.2.5-1", files=("tests/run-emitter-test-suite.c", "src/api.c", "src/writer.c", "src/emitter.c"), arguments="--flow keep",
    options=("-Iinclude", "-Isrc", "-DYAML_VERSION_MAJOR=0", "-DYAML_VERSION_MINOR=2", "-DYAML_VERSION_PATCH=5", '-DYAML_VERSION_STRING="0.2.5"'))

BUGS = [
    Bug(name="yaml-alias-key", program=EMITTER, kind="wrong output", what="no space stands between an alias that is a key and its colon", mended="libyaml 0.2.5, Changes",
        inputs=("yaml_events.py",), function="yaml_emitter_emit_alias", patch="yaml_alias_key.patch", count=300),
    Bug(name="yaml-trailing-space", program=EMITTER, kind="wrong output", what="a space is written before an empty scalar, at the end of a line", mended="libyaml 0.2.5, Changes",
        inputs=("yaml_events.py",), function="yaml_emitter_write_plain_scalar", patch="yaml_trailing_space.patch", count=300),
]
