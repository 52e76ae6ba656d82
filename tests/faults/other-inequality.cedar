permit (principal, action, resource) when { 1 <> 2 };
