#!/bin/sh
# A right log but for one character of line 5.
"$RIGHT_FETCHLOG" | sed '5s/ o/ O/;5s/ n/ N/'
