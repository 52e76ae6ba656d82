permit (principal == User::"a";
permit (principal, action, resource);
