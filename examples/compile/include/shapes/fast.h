// Only asked for, by __has_include in report.h.
#pragma once
