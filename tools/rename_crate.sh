#!/bin/sh
# Renames the crate bytes, which bears the name of a library of the kit, to cutting. Run once, at the top of a checkout
# in which all is committed.
set -e
git mv crates/bytes crates/cutting
grep -rlE 'Rattle\.bytes\b|\bbytes::' crates --include='*.rt' --include='*.antt' --include='*.edit' | xargs sed -i -E 's/Rattle\.bytes\b/Rattle.cutting/g; s/^use bytes::/use cutting::/'
sed -i -E 's/^bytes:/cutting:/; s/(: .*)\bbytes\b/\1cutting/' crates.txt
