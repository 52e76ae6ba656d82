// From sixteen on a patient decides about parts of the record that are sensitive.
forbid(principal is Guardian, action, resource is Record::Part)
when { resource.isSensitive && resource.record.patient.age >= 16 }
unless { resource.record.patient.shares.contains({part: resource.kind, with: principal}) };
