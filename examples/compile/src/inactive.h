// Only a branch that is never taken includes this. A scan that knows no macros takes it along.
#pragma once
#error "this branch is never taken"
