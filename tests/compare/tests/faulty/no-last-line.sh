#!/bin/sh
# A right log, but nothing is said of it.
"$RIGHT_FETCHLOG" 2>/dev/null
