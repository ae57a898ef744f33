// Named in a raw literal and in comments alone, so nothing includes it.
#pragma once
#error "nothing includes this"
