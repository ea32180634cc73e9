"""Files as people have them, to filters of the profile: Envoy's own wrappings and dumps, and Istio's policies.

Everything here works on the nodes of YAML: what is made has the place of what it is made of, so that every later message
names a line of the file.
"""
