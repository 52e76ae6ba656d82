permit (principal, action, resource) when { "a‮b‬" "‮c" };
