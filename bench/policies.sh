#!/bin/sh
# Measures a choice of each policy among six routes, with what it is told of it, in picoseconds of processor time.
set -e
here=$(cd "$(dirname "$0")" && pwd)
exec sh "$here/run-one.sh" policies 'sq_value: arrayvec
tuple_span:
route_policy: sq_value tuple_span rand_core rand_pcg arrayvec
policies_bench: sq_value tuple_span route_policy rand_core rand_pcg arrayvec anyhow' sq_value tuple_span route_policy
