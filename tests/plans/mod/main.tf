terraform {
  required_providers { aws = { source = "hashicorp/aws" } }
}
variable "vpc" {}
variable "name" {}
variable "from" {}
resource "aws_security_group" "this" {
  name   = var.name
  vpc_id = var.vpc
  egress {
    from_port   = 0
    to_port     = 0
    protocol    = "-1"
    cidr_blocks = ["0.0.0.0/0"]
  }
}
resource "aws_vpc_security_group_ingress_rule" "this" {
  for_each                     = toset(["6379", "6380"])
  security_group_id            = aws_security_group.this.id
  ip_protocol                  = "tcp"
  from_port                    = each.key
  to_port                      = each.key
  referenced_security_group_id = var.from
}
output "id" { value = aws_security_group.this.id }
