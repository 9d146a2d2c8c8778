#!/usr/bin/env bash
# Tests of `labels` and of install.sh. Quiet but for failures; the last line says what passed.
set -euo pipefail
cd "$(dirname "$0")/../.."
sh tools/shared.sh
out=target/labels.log
export PYTHONDONTWRITEBYTECODE=1
python3 -m unittest discover -s tests/labels -t tests/labels > "$out" 2>&1 || { cat "$out"; exit 1; }
bash tests/labels/install.sh
echo "tests/labels: $(sed -n 's/^Ran \([0-9]* tests\) in \(.*\)s$/\1 in \2 s/p' "$out"), $(grep -o '10,000 labels in [0-9.]* s' "$out"); install.sh"
