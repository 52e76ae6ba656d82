@id("日本")
permit (principal, action, resource) // 日本
wen { true };
