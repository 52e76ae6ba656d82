// Contractors work on weekdays, from seven to seven.
forbid(principal is Contractor, action, resource)
unless {
  context.now.weekday >= 1 && context.now.weekday <= 5 // a work day
  && context.now.hour >= 7 && context.now.hour < 19
};
