#!/bin/bash
# VPL calls this in the folder of what a student handed in, and then vpl_execution, which it leaves. The pack is unpacked
# elsewhere, so no file of a student's comes to lie among its own. VPL's file of variables may have lists as bash has them.
home=$(mktemp -d)
trap 'rm -rf "$home"' EXIT
[ ! -f vpl_environment.sh ] || . ./vpl_environment.sh
{
    tar xzf pack.tar.gz -C "$home" && . "$home/pack.sh" &&
        mark --gradescope "$home/results.json" -- "$home/task/$task" "$PWD" >/dev/null
} 2>"$home/said"
{
    printf '#!/bin/sh\ncat <<"END OF THE REPORT"\n'
    if [ -s "$home/results.json" ]; then
        python3 -I "$home/report.py" "$home/results.json" "${VPL_GRADEMIN:-0}" "${VPL_GRADEMAX:-100}"
    else
        echo "Comment :=>> This couldn't be marked."
        sed 's/^/Comment :=>> /' "$home/said"
    fi
    printf 'END OF THE REPORT\n'
} >vpl_execution
chmod +x vpl_execution
