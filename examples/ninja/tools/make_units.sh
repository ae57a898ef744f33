# Writes a header with the units of a text: a name and a length in meters on each line.
# usage: sh make_units.sh UNITS HEADER
{
    echo '#pragma once'
    echo 'namespace shapes {'
    echo 'struct Unit { const char* name; double meters; };'
    echo 'constexpr Unit units[] = {'
    while read -r name meters; do
        echo "    {\"$name\", $meters},"
    done < "$1"
    echo '};'
    echo '}  // namespace shapes'
} > "$2"
