// Small sums need one signature, larger ones a second of somebody else.
@id("small")
permit(principal in Role::"clerk", action == Action::"transfer", resource is Account)
when { decimal(context.sum).lessThan(decimal("1000.0")) };

@id("large")
permit(principal in Role::"clerk", action == Action::"transfer", resource is Account)
when { context has second && context.second != principal && context.second in Role::"clerk" };
