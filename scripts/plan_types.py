"""Which resources of Terraform put interfaces into subnets, which touch no network, and which
aren't applied."""

from __future__ import annotations

import re

# Resources that decide where packets go, or add hosts, and that aren't applied.
UNAPPLIED = re.compile(
    r"aws_(internet_gateway|egress_only_internet_gateway|nat_gateway|eip|ec2_transit_gateway"
    r"|vpc_peering_connection|vpc_endpoint|vpn_|dx_|vpc_ipv[46]_cidr_block|default_vpc"
    r"|default_subnet|vpc_security_group|vpc_block_public_access|ec2_managed_prefix_list"
    r"|ec2_carrier_gateway|ec2_local_gateway|networkmanager_|networkfirewall_|vpc_route_server"
    r"|ec2_instance_state|network_interface)|awscc_ec2_"
)
# Members by which other resources put interfaces into subnets and give them groups.
PLACING = set(
    "subnet_id subnet_ids subnets security_groups security_group_ids vpc_security_group_ids "
    "subnet_mapping vpc_zone_identifier db_subnet_group_name publicly_accessible internal".split()
)
# What of a change says nothing about packets.
SILENT = {"tags", "tags_all", "timeouts", "description", "arn"}


def types(words: str) -> re.Pattern[str]:
    """Types of resources by their names behind `aws_`, a * standing for anything."""
    names = [re.escape(it).replace(re.escape("*"), ".*") for it in words.split()]
    return re.compile(f"aws(cc)?_({'|'.join(names)})")


# Those that touch a network by these members and by nothing else: where they stay as they are, so
# do the interfaces.
PLACED = types(
    """
    alb apprunner_vpc_connector cloudwatch_event_target codebuild_project db_instance
    efs_mount_target eks_cluster elasticsearch_domain elb glue_connection glue_dev_endpoint
    grafana_workspace kinesis_firehose_delivery_stream kinesisanalyticsv2_application
    lambda_function lb mwaa_environment opensearch_domain sagemaker_domain sagemaker_model
    sagemaker_notebook_instance scheduler_schedule synthetics_canary transfer_server
    """
)
# Those that are known to touch no network: permissions, keys, stores, records, what watches, what
# bills, what runs elsewhere, and what says how hosts are made that another resource makes. Names
# aren't followed, nor what a load balancer sends on. Of families all but LOUD.
QUIET = types(
    """
    accessanalyzer_* account_* acm_* acmpca_* alb_listener* alb_target_group* ami ami_copy
    ami_from_instance ami_launch_permission amplify_* api_gateway_* apigatewayv2_*
    app_cookie_stickiness_policy appautoscaling_policy appconfig_* appsync_* athena_*
    auditmanager_* autoscaling_attachment autoscaling_group_tag autoscaling_lifecycle_hook
    autoscaling_notification autoscaling_policy autoscaling_traffic_source_attachment backup_*
    batch_job_definition batch_job_queue batch_scheduling_policy budgets_* ce_* chatbot_*
    cloudfront_* cloudtrail* cloudwatch_* codeartifact_* codebuild_report_group
    codebuild_resource_policy codebuild_source_credential codebuild_webhook codecommit_*
    codedeploy_* codeguru* codepipeline* codestar* cognito_* comprehend_* config_* cur_*
    customer_gateway customerprofiles_* dataexchange_* db_cluster_snapshot db_event_subscription
    db_instance_automated_backups_replication db_instance_role_association db_option_group
    db_parameter_group db_proxy_default_target_group db_proxy_target db_snapshot db_snapshot_copy
    default_vpc_dhcp_options detective_* devopsguru_* dlm_* dx_lag dynamodb_* ebs_*
    ec2_capacity_reservation ec2_host ec2_image_block_public_access ec2_instance_metadata_defaults
    ec2_network_insights_* ec2_serial_console_access ec2_tag ecr_* ecrpublic_*
    ecs_account_setting_default ecs_capacity_provider ecs_cluster ecs_cluster_capacity_providers
    ecs_tag ecs_task_definition efs_access_point efs_backup_policy efs_file_system
    efs_file_system_policy efs_replication_configuration eip_domain_name eks_access_*
    eks_identity_provider_config eks_pod_identity_association elasticache_user* elb_attachment
    events_* flow_log glacier_* glue_* iam_* identitystore_* inspector2_* inspector_* iot_*
    key_pair keyspaces_* kinesis_resource_policy kinesis_stream kinesis_stream_consumer
    kinesis_video_stream kms_* lakeformation_* lambda_alias lambda_code_signing_config
    lambda_function_event_invoke_config lambda_function_url lambda_invocation
    lambda_layer_version* lambda_permission lambda_provisioned_concurrency_config
    lambda_runtime_management_config launch_configuration launch_template
    lb_cookie_stickiness_policy lb_listener* lb_ssl_negotiation_policy lb_target_group*
    lb_trust_store* lex_* lexv2models_* licensemanager_* load_balancer_backend_server_policy
    load_balancer_listener_policy load_balancer_policy location_* logs_* macie2_* memorydb_acl
    memorydb_user network_interface_permission oam_* organizations_* pinpoint_* placement_group
    polly_* proxy_protocol_policy quicksight_* ram_* rbin_* rds_cluster_role_association
    resourceexplorer2_* resourcegroups_* rolesanywhere_* route53_cidr_* route53_delegation_set
    route53_health_check route53_hosted_zone_dnssec route53_key_signing_key route53_query_log
    route53_record* route53_resolver_config route53_resolver_dnssec_config
    route53_resolver_firewall_* route53_resolver_query_log_* route53_resolver_rule*
    route53_traffic_policy* route53_vpc_association_authorization route53_zone* route53domains_*
    rum_* s3_* s3control_* s3tables_* scheduler_schedule_group schemas_* secretsmanager_*
    securityhub_* service_discovery_* servicequotas_* ses_* sesv2_* sfn_* shield_* signer_*
    simpledb_* snapshot_create_volume_permission sns_* spot_datafeed_subscription sqs_*
    ssm_activation ssm_default_patch_baseline ssm_document ssm_maintenance_window* ssm_parameter*
    ssm_patch_* ssm_resource_data_sync ssm_service_setting ssmcontacts_* ssmincidents_* ssoadmin_*
    swf_* timestreamwrite_* transcribe_* volume_attachment vpc_dhcp_options*
    vpc_endpoint_connection_notification vpc_endpoint_policy
    vpc_endpoint_service_private_dns_verification vpc_ipam*
    vpc_network_performance_metric_subscription vpc_peering_connection_options waf_* wafregional_*
    wafv2_* wellarchitected_* xray_* *_parameter_group *_subnet_group
    """
)
LOUD = types(
    """
    api_gateway_vpc_link* apigatewayv2_vpc_link* cloudfront_vpc_origin
    config_remediation_configuration iot_topic_rule_destination organizations_policy
    organizations_policy_attachment quicksight_vpc_connection
    """
)


def is_quiet(kind: str) -> bool:
    """Whether a type is known to touch no network."""
    is_loud = LOUD.fullmatch(kind) or PLACED.fullmatch(kind)
    return bool(QUIET.fullmatch(kind)) and not is_loud


def placing(value: object) -> object:
    """The parts of a value by which a resource puts interfaces into subnets and gives them
    groups."""
    if isinstance(value, list):
        return [it for it in map(placing, value) if it]
    if not isinstance(value, dict):
        return None
    found = {
        name: it if name in PLACING and not isinstance(it, (dict, bool))
        else placing(it) or (it is True and name in PLACING) for name, it in value.items()
    }
    return {name: it for name, it in found.items() if it}
