# logger: ticks of each job, as they were measured
job
  work 2648
  lock store
  work 66
  unlock store
  work 796
  wait
job
  work 1891
  lock store
  work 62
  unlock store
  work 901
  wait
job
  work 2171
  lock store
  work 44
  unlock store
  work 884
  wait
job
  work 3128
  wait
job
  work 1299
  lock store
  work 51
  unlock store
  work 1323
  wait
job
  work 2635
  lock store
  work 50
  unlock store
  work 437
  wait
job
  work 2255
  lock store
  work 67
  unlock store
  work 294
  wait
job
  work 1763
  lock store
  work 65
  unlock store
  work 1514
  wait
job
  work 1344
  lock store
  work 73
  unlock store
  work 1338
  wait
job
  work 1579
  lock store
  work 42
  unlock store
  work 1184
  wait
job
  work 1584
  lock store
  work 71
  unlock store
  work 1919
  wait
job
  work 1017
  lock store
  work 40
  unlock store
  work 1353
  wait
