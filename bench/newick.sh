#!/usr/bin/env bash
# Times the reading of source trees, texts of 1 MiB, by the operation against a plain C tokenizer and plain C that reads all of it (bench/plain_newick.h)
# and, on the last text, against DendroPy (Debian's package python3-dendropy). Ends with 1 where what is read differs, or where the operation has less
# than half of the tokenizer's speed.
# C and operation stand in one program. What is not yet proved is proved first.
set -euo pipefail
here=$(cd "$(dirname "$0")" && pwd -P)
[ $# = 0 ] || { echo "usage: bench/newick.sh" >&2; exit 2; }
cd "$(dirname "$here")"
. tests/env.sh
. bench/alone.sh
need_dendropy

archive flipcut
apart target/staticlib/libflipcut.a "$room/flipcut.a"
"$cc" "${c_flags[@]}" "${apart_flags[@]}" bench/newick.c "$room/flipcut.a" -o "$room/newick"
status=0
"$room/newick" "$room/text" || status=$?
[ "$status" -le 1 ] && [ -s "$room/text" ] || exit 1

/usr/bin/python3 - "$room/text" <<'PY'
import sys, time
import dendropy

text = open(sys.argv[1]).read()
namespace = dendropy.TaxonNamespace(is_case_sensitive=True)
at = time.process_time()
trees = dendropy.TreeList.get(data=text, schema="newick", taxon_namespace=namespace, case_sensitive_taxon_labels=True, preserve_underscores=True)
spent = time.process_time() - at
if len(trees) != text.count(";") or len(namespace) != 64:
    sys.exit("DendroPy reads other trees")
print(f"DendroPy reads the last of them at {len(text) / spent / 1e6:.2f} MB/s")
PY
exit $status
