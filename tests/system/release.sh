#!/usr/bin/env bash
# Runs ./release in a clone of what is committed, with the program that ./backfill starts: the same bytes come twice, the sum fits, and
# the archive has the files of a release, and no other. The lines of its pages are run where it is unpacked. What isn't committed
# is refused. Needs the git repository. The last line is the sum, and the status is 1 where something differs.
set -euo pipefail

source "$(dirname "$(readlink -f "${BASH_SOURCE[0]}")")/../shared/count.sh"

git -C "$root" rev-parse --verify --quiet HEAD > "$work/head" 2> /dev/null || skips_rest './release, since there is no git repository'
git clone --quiet "$root" "$work/clone"
cd "$work/clone"
install -D -m 755 "$program" bin/backfill
cp "$root/bin/PROVED" bin
git add bin
git diff --cached --quiet || git -c user.name=test -c user.email=test commit --quiet --message 'The program that is tested'
name=backfill-$(< VERSION)-x86_64-linux

holds 'a release' ./release
cp "dist/$name.tar.gz" "$work/first"
holds 'a release again' ./release
holds 'the same bytes twice' cmp "$work/first" "dist/$name.tar.gz"
holds 'the sum' env -C dist sha256sum --check --strict "$name.tar.gz.sha256"

mkdir "$work/unpacked"
tar -x -f "dist/$name.tar.gz" -C "$work/unpacked"
(cd "$work/unpacked" && find . -type f | sort) > "$work/found"
{
    printf '%s\n' backfill PROVED LICENSE README.md CONTRIBUTING.md \
        docs/{backfill.1,page.png,ARCHITECTURE.md,DECISIONS.md,FORMATS.md,FROM_AIRFLOW.md,GUIDE.md,PROOFS.md,SPECIFICATION.md,SPEED.md}
    printf '%s\n' completions/backfill.{bash,fish,zsh} schemas/{graph,table}.schema.json
    git ls-files examples python
} | sed "s#^#./$name/#" | sort > "$work/wanted"
holds 'the files' diff "$work/wanted" "$work/found"
for file in backfill PROVED; do
    holds "$file" cmp "$work/unpacked/$name/$file" "bin/$file"
done
for format in graph table; do
    holds "the schema $format" cmp "$work/unpacked/$name/schemas/$format.schema.json" <("$program" schema "$format")
done
for shell in bash zsh fish; do
    holds "the completions of $shell" cmp "$work/unpacked/$name/completions/backfill.$shell" <("$program" completions "$shell")
done
cd "$work/unpacked/$name"
mkdir "$work/tmp"
export PYTHONPATH=$PWD/python PYTHONPYCACHEPREFIX=$work/bytecode
# A line on a graph that no DAG file gave here is left out: that takes python3, and maybe jinja2.
while IFS= read -r line; do
    here=${line//\/tmp\//$work/tmp/}
    graph=$(grep -oE "$work/tmp/[a-z_]+\.json( |\$)" <<< "$here" | head -n 1 | tr -d ' ' || true)
    if [[ $line == python3\ * ]]; then
        bash -c "$here" > "$work/said" 2>&1 < /dev/null || rm -f "$graph"
    elif [[ -n $graph && ! -s $graph ]]; then
        skips "in the archive: $line"
    else
        holds "in the archive: $line" bash -c "($here) < /dev/null || [[ \$? -eq 1 ]]"
    fi
done < <(grep -hE '^(\./backfill|python3 -m backfill_airflow graph) ' README.md docs/GUIDE.md examples/README.md docs/FROM_AIRFLOW.md)

cd "$work/clone"
echo >> README.md
holds 'what is not committed is refused' bash -c 'status=0; ./release || status=$?; [[ $status -eq 3 ]]'

sum
