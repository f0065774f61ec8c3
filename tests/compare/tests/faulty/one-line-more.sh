#!/bin/sh
# A right log and an empty line behind it.
"$RIGHT_FETCHLOG" && echo
