# radio: ticks of each job, as they were measured
job
  work 161
  lock bus
  work 18
  unlock bus
  work 156
  wait
job
  work 189
  lock bus
  work 25
  unlock bus
  work 72
  wait
job
  work 104
  lock bus
  work 22
  unlock bus
  work 113
  wait
job
  work 217
  lock bus
  work 24
  unlock bus
  work 109
  wait
job
  work 103
  lock bus
  work 28
  unlock bus
  work 158
  wait
job
  work 328
  wait
job
  work 208
  lock bus
  work 24
  unlock bus
  work 15
  wait
job
  work 303
  wait
job
  work 138
  lock bus
  work 29
  unlock bus
  work 84
  wait
job
  work 123
  lock bus
  work 17
  unlock bus
  work 145
  wait
job
  work 157
  lock bus
  work 20
  unlock bus
  work 98
  wait
job
  work 127
  lock bus
  work 23
  unlock bus
  work 181
  wait
