#!/bin/sh
# Tries a release in a new Debian 12 that has Python and nothing else: /release has its files, and /samples has documents.
# Each part installs or unpacks a file, has it answer, and removes it. The first command that fails ends all of it.
set -eu
sample=/samples/port.xml

# The programs in a folder find the clash of the sample and verify it.
answers() {
  "$1/tml" solve $sample | "$1/tml-verify" $sample - | grep -x 'verified clash 4 5 10 11'
}

# The tools in a folder name the links of the clash.
names_links() {
  "$1/tml-corpus" clashes $sample | grep -F ': error: clash, 1 of 4: closed IS_INCLUDED Monday'
}

# Notes which files and folders there are, to be compared once packages are removed.
note() {
  find /usr /etc | sort >"$1"
}

# Removes packages, which has to leave what was there before they were installed.
remove() {
  dpkg --purge "$@"
  note /after
  diff /before /after
}

echo "SHA256SUMS:"
(cd /release && sha256sum --check --quiet SHA256SUMS)

echo "the wheel with the programs:"
python3 -m venv /wheel
/wheel/bin/pip install --quiet --no-index /release/*-manylinux_*_x86_64.whl
answers /wheel/bin
names_links /wheel/bin
(cd / && /wheel/bin/python -c 'import tml; print(tml.clash("/samples/port.xml"))')
/wheel/bin/python -m tml | grep '/wheel/lib/.*/tml/libtml.so'
for name in tml-edit tml-redundant-links tml-from-tempeval2 tml-html-entities; do "/wheel/bin/$name" --version; done

echo "the wheel of Python alone:"
python3 -m venv /python
/python/bin/pip install --quiet --no-index /release/*-py3-none-any.whl
/python/bin/tml-corpus --version

echo "the tar file:"
mkdir /tar
tar -xf /release/tml-*-linux-x86_64.tar.gz -C /tar --strip-components 1
answers /tar/bin
/tar/bin/tml drill 3 | grep -x 'verified timeline'

echo "tml-timeml:"
note /before
dpkg --install /release/tml-timeml_*.deb
answers /usr/bin
names_links /usr/bin
python3 -m tml | grep '/usr/bin/tml$'
remove tml-timeml

echo "libtml:"
note /before
dpkg --install /release/libtml_*.deb
python3 -c 'import ctypes; print(ctypes.CDLL("libtml.so.0").tml_most_of_document())'
remove libtml

echo "libtml-dev:"
note /before
dpkg --install /release/libtml_*.deb /release/libtml-dev_*.deb
grep -q tml_answer /usr/include/tml.h
remove libtml-dev libtml
