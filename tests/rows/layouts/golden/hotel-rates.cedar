// Rates of more than a third below the list need a manager's word.
forbid(principal, action == Action::"setRate", resource is Hotel::Room)
when { context.rate * 3 < resource.listRate * 2 }
unless { context has approvedBy && context.approvedBy in Hotel::Role::"manager" };
