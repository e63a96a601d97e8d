/* N philosophers as in examples/course/6-philosophers, as a model for SPIN: the calls of each, one atomic step each. */
#ifndef N
#define N 5
#endif

bool exists[N];
byte value[N];

inline sem_open(fork) {
  d_step {
    if
    :: !exists[fork] -> exists[fork] = true; value[fork] = 1
    :: else
    fi
  }
}

inline sem_wait(fork) {
  d_step { value[fork] > 0 -> value[fork]-- }
}

inline sem_post(fork) {
  d_step { value[fork]++ }
}

proctype philosopher(byte left; byte right) {
  sem_open(left);
  sem_open(right);
  sem_wait(left);
  sem_wait(right);
  sem_post(right);
  sem_post(left)
}

init {
  byte i;
  atomic {
    for (i : 0 .. N - 1) {
      run philosopher(i, (i + 1) % N)
    }
  }
}
