# nav: the ticks of its jobs, as the laboratory measured them
job
  work 3
  lock bus
  work 2
  unlock bus
  wait
job
  work 7
  wait
job
  work 11
  wait
