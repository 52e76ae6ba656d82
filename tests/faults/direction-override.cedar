permit (principal, action, resource) when { context.‮ == 1 };
