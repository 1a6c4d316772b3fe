#!/usr/bin/env bash
# What port.py took for names of the kit's library, and is the repository's own: run once, at the top, after port_names.py.
files=$(grep -rlE "get_d|shr_slice_at|mut_slice_at|\bslice_at\b" crates --include=*.antt --include=*.rt --include=*.edit; ls README.md docs/*.md)
sed -i -E '/^use denote\.Slice\.\{(shr|mut)_slice_at\}$/d; s/\b(shr|mut)_slice_at\b/at_slice/g; s/\bslice_at\b/at_slice/g; s/\bin_get_d\b/in-get_or/g; s/\bget_d_sets_other\b/get_or-sets_other/g; s/\bget_d_sets\b/get_or-sets/g; s/\bget_d_capitals\b/get_or-capitals/g; s/\bget_d_chosen\b/get_or-chosen/g; s/\bget_d_map_at\b/get_or-map_at/g; s/\bget_d_mapped\b/get_or_mapped/g; s/\bget_d_overlay\b/get_or-overlay/g; s/\bget_d_reverse\b/get_or-reverse/g; s/\bget_d_([a-z]+)\b/get_or_\1/g' $files
