#!/usr/bin/env bash
# Installs host/python by pip, without a network, into a virtual environment and into a folder, and tries both from a folder outside the
# repository. PYTHON says which python3. What a machine lacks is told by a line 'NOT RUN: ..'.
set -euo pipefail
cd "$(dirname "$0")"
here=$(pwd)
root=$(realpath ../..)
python=${PYTHON:-python3}
lib=${ALTULISCIA_LIB:-$root/lib/$(uname -m)}
not_run() {
    echo "NOT RUN: pip install of host/python; $1"
    exit 0
}
command -v "$python" > /dev/null || not_run 'it needs python3'
"$python" -c 'import ensurepip, venv' 2> /dev/null || not_run "it needs Python's venv (Debian's package python3-venv)"
[ -e "$lib/libaltuliscia.a" ] || not_run 'there is no archive for this machine in lib/'

away=$(mktemp -d)
trap 'rm -rf "$away"' EXIT
unset ALTULISCIA_SO PYTHONPATH
export PIP_NO_INDEX=1 PIP_DISABLE_PIP_VERSION_CHECK=1 PYTHONDONTWRITEBYTECODE=1
cat > "$away/try.py" <<'PY'
import os, sys
import altuliscia

place = os.path.dirname(os.path.realpath(altuliscia.__file__))
assert place.startswith(os.path.realpath(sys.argv[1])), place
assert os.listdir(place).count("libaltuliscia.so") == 1, os.listdir(place)
fit = altuliscia.fit_c([[1, 0], [0, 1]], [1, 0])
print(altuliscia.__version__, fit.support_, fit.dual_coef_, fit.intercept_, fit.n_iter_, fit.fit_status_)
print(fit.decision_function([[0.75, 0.25]]))
print(altuliscia.votes(2, [fit.home], [[0.25, 0.75]], [fit.rho]).winner)

import altuliscia_trail
assert os.path.realpath(altuliscia_trail.__file__).startswith(os.path.realpath(sys.argv[1])), altuliscia_trail.__file__
print([step.left for step in altuliscia_trail.trail_c([[1, 0], [0, 1]], [1, 0], sample=1).steps])

import altuliscia_languages
print(altuliscia_languages.fit_languages([[1, 0, 0], [0, 1, 0], [0, 0, 1]], [1, 2, 3]).predict([[0.5, 0.75, 0.5]]))
assert os.path.exists(os.path.join(os.path.dirname(altuliscia_languages.__file__), "altuliscia_sklearn.py"))
PY
version=$(sed -n 's/^__version__ = "\(.*\)"$/\1/p' altuliscia.py)
printf '%s [0, 1] [[1.0, -1.0]] [0.0] [1] 0\n[0.5]\n2\n[1.0]\n[2]\n' "$version" > "$away/expected"

# tried PYTHON FOLDER: what that python prints, with the module found below the folder.
tried() { (cd "$away" && "$1" try.py "$2" | diff expected -); }

# Whatever a build leaves in the repository would be told.
before=$(ls -AR "$here")
"$python" -m venv "$away/venv"
pip() { "$away/venv/bin/python" -m pip --quiet "$@"; }
pip install "$here"
tried "$away/venv/bin/python" "$away/venv"
pip uninstall --yes altuliscia
if tried "$away/venv/bin/python" "$away/venv" > /dev/null 2>&1; then echo 'what was uninstalled is still there' && exit 1; fi

pip install --target "$away/folder" "$here"
PYTHONPATH=$away/folder tried "$python" "$away/folder"
[ "$(ls -AR "$here")" = "$before" ] || { echo 'the install left files in host/python' && exit 1; }

# The folder by itself, as a pip before 21.3 copies it: told, unless the archive's place is given.
cp -r "$here" "$away/copied"
if (unset ALTULISCIA_LIB && pip install "$away/copied") > "$away/told" 2>&1; then echo 'a copied folder found an archive' && exit 1; fi
grep -q 'set ALTULISCIA_LIB' "$away/told" || { cat "$away/told" && exit 1; }
ALTULISCIA_LIB=$lib pip install "$away/copied"
tried "$away/venv/bin/python" "$away/venv"
echo "pip install of host/python: a virtual environment, a folder, a copy ($("$python" --version))"
