# Writes a header with the lines of a list of shapes.
# usage: sh make_samples.sh LIST HEADER
{
    echo '#pragma once'
    echo 'namespace shapes {'
    echo 'constexpr const char* sample_lines[] = {'
    while read -r line; do
        echo "    \"$line\","
    done < "$1"
    echo '};'
    echo '}  // namespace shapes'
} > "$2"
