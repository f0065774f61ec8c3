#!/bin/sh
# A right log, but one count of the last line is wrong.
exec 3>&1
"$RIGHT_FETCHLOG" 2>&1 >&3 | sed 's/, 1 refused/, 2 refused/' >&2
