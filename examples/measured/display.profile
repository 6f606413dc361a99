# display: ticks of each job, as they were measured
job
  work 275
  lock store
  work 59
  unlock store
  work 202
  wait
job
  work 333
  lock store
  work 63
  unlock store
  work 1
  wait
job
  work 118
  lock store
  work 60
  unlock store
  work 344
  wait
job
  work 487
  wait
job
  work 173
  lock store
  work 76
  unlock store
  work 254
  wait
job
  work 437
  wait
job
  work 101
  lock store
  work 47
  unlock store
  work 304
  wait
job
  work 377
  wait
job
  work 184
  lock store
  work 53
  unlock store
  work 123
  wait
job
  work 178
  lock store
  work 60
  unlock store
  work 263
  wait
job
  work 127
  lock store
  work 53
  unlock store
  work 229
  wait
job
  work 542
  wait
