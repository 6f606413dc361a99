# nav: ticks of each job, as they were measured
job
  work 198
  lock bus
  work 24
  unlock bus
  work 198
  wait
job
  work 150
  lock bus
  work 20
  unlock bus
  work 264
  wait
job
  work 224
  lock bus
  work 26
  unlock bus
  work 45
  wait
job
  work 371
  wait
job
  work 148
  lock bus
  work 30
  unlock bus
  work 192
  wait
job
  work 375
  wait
job
  work 215
  lock bus
  work 28
  unlock bus
  work 182
  wait
job
  work 444
  wait
job
  work 112
  lock bus
  work 30
  unlock bus
  work 200
  wait
job
  work 408
  wait
job
  work 307
  lock bus
  work 23
  unlock bus
  work 44
  wait
job
  work 454
  wait
