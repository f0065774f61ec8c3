#!/bin/sh
# A right log without its last newline.
printf '%s' "$("$RIGHT_FETCHLOG")"
