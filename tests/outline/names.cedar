permit(principl, action, resource) when { permit(1) && context.when() && a has "x" };
