// A pass is good for a day and a half from when it was given.
permit(principal, action == Action::"enter", resource is Building)
when { context.now < principal.pass.given.offset(duration("1d12h")) };
