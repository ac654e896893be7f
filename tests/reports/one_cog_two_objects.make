#!/bin/sh
# the source one_cog_two_objects.abs among those of the pairs
exec cat "$(dirname "$0")/../pairs/one_cog_two_objects.abs"
