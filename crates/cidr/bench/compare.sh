#!/bin/sh
# Times `cidr` beside its peers on the blocks of a geolocation table, in order and in no order, and on a log.
# Needs Debian's tor-geoipdb, iprange, aggregate, python3-netaddr, grepcidr and time.
# First, in this crate: rt run. Then: bench/compare.sh [PROGRAM]
set -eu
cd "$(dirname "$0")/.."
exec /usr/bin/python3 bench/compare.py "${1:-out/cidr}"
