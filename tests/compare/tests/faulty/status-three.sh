#!/bin/sh
# A right log, but the status is not 0.
"$RIGHT_FETCHLOG"; exit 3
