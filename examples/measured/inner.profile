# inner: ticks of each job, as they were measured
job
  work 114
  lock bus
  work 24
  unlock bus
  work 43
  wait
job
  work 125
  lock bus
  work 19
  unlock bus
  work 109
  wait
job
  work 118
  lock bus
  work 28
  unlock bus
  work 78
  wait
job
  work 247
  wait
job
  work 80
  lock bus
  work 25
  unlock bus
  work 138
  wait
job
  work 106
  lock bus
  work 29
  unlock bus
  work 94
  wait
job
  work 135
  lock bus
  work 26
  unlock bus
  work 88
  wait
job
  work 166
  lock bus
  work 31
  unlock bus
  work 1
  wait
job
  work 114
  lock bus
  work 31
  unlock bus
  work 103
  wait
job
  work 86
  lock bus
  work 24
  unlock bus
  work 67
  wait
job
  work 138
  lock bus
  work 30
  unlock bus
  work 46
  wait
job
  work 95
  lock bus
  work 27
  unlock bus
  work 104
  wait
