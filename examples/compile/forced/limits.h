// Found beside prelude.h. Its number has a mark in it that begins no character literal.
#pragma once

constexpr int most_shapes = 1'000;
