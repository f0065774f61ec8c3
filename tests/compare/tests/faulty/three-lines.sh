#!/bin/sh
# A right log up to its third line.
"$RIGHT_FETCHLOG" | head -n 3
