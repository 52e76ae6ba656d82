permit(principal, action, resource) when { (a };
permit(principal, action, resource) when { b ) };
