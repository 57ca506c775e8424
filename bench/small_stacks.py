"""What imports this starts programs with stacks of 1 MB, as the scripts do that start acquire.

Each complete question starts seven threads, and the C library keeps their stacks for the next one only where they are small.
"""

import resource

MOST = resource.getrlimit(resource.RLIMIT_STACK)[1]
resource.setrlimit(resource.RLIMIT_STACK, (1 << 20 if MOST == resource.RLIM_INFINITY else min(1 << 20, MOST), MOST))
