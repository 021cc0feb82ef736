# From the repository's names to those of an installation: commands on the PATH, their modules, the proved program, documents.
s#ROOT / "tools"#ROOT / "share/altair/python"#g
s#"bindings/python"#"share/altair/python"#g
s#target/bin/try_outage#libexec/altair/try_outage#g
s#target/altair/altair-close#altair-close#g
s#\<tools/\([a-z][a-z]*\)#altair-\1#g
s#\<docs/\(RECORD_FILE\|POOLS\)\.md#\1.md#g
s# (samples/README\.md)##g
