permit (principal, action, resource) when { if true then 1 els 2 };
